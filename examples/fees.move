// What a payment costs, and what is left of a balance after it.
module 0x42::fees {
    fun cost(amount: u64, fee: u64): u64 { amount + fee }
    spec cost {
        aborts_if amount + fee > MAX_U64;
        ensures result >= amount;
        ensures result == amount + fee;
    }

    fun left_over(balance: u64, amount: u64, fee: u64): u64 { balance - amount - fee }
    spec left_over {
        requires amount + fee <= balance;
        aborts_if false;
        ensures result + amount + fee == balance;
    }
}
