// What calls the published module's private function, and reads a sort's code.

pub fn fold_model<S: SMTSolver>(
    model: &mut Model,
    inputs: &mut Vec<u64>,
    minimize: bool,
    terminate_on_bad: bool,
    one_query: bool,
) {
    optimize_model_impl::<S>(model, inputs, None, minimize, terminate_on_bad, one_query)
}

pub fn sort_code(sort: &NodeType) -> u64 {
    super::get_sort(sort)
}
