// The sum may leave u64, which the spec denies: the condition `aborts` is not proved.
module 0x7::counter {
    fun next(count: u64, step: u64): u64 { count + step }
    spec next {
        aborts_if false;
        ensures result == count + step;
    }
}
