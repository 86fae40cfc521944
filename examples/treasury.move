// The arithmetic of a small treasury, by itself: every amount that moves is a sum of amounts that were given.
// Each function says in its spec when it aborts and what it returns, and `movep` proves each of them.

/* What is left out here on purpose:
     /* the storage of balances, */
   which a later module would add.
*/
#[allow(unused_function)]
module 0xCAFE::treasury {

    // ---- deposits ----

    /// The balance after a deposit.
    fun deposit(balance: u64, amount: u64): u64 {
        balance + amount
    }
    spec deposit {
        aborts_if balance + amount > MAX_U64;
        ensures result == balance + amount;
        ensures result >= balance;
    }

    /// The balance after a deposit of which a fee is kept.
    fun deposit_less_fee(balance: u64, amount: u64, fee: u64): u64 {
        balance + (amount - fee)
    }
    spec deposit_less_fee {
        // The fee is taken off the amount first, so a fee above the amount aborts, however large the balance is.
        aborts_if fee > amount;
        aborts_if balance + (amount - fee) > MAX_U64;
        ensures result + fee == balance + amount;
    }

    /// The same for a fee that never exceeds the amount, and a balance that has room.
    #[view]
    fun deposit_within(balance: u64, amount: u64, fee: u64): u64 {
        (balance + amount) - fee
    }
    spec deposit_within {
        requires fee <= amount;
        requires (balance + amount) <= MAX_U64;
        aborts_if false;
        ensures result >= balance;
        ensures (result == ((balance + amount) - fee));
    }

    // ---- withdrawals ----

    /// What is left after a withdrawal.
    fun withdraw(balance: u64, amount: u64): u64 { balance - amount }
    spec withdraw {
        aborts_if amount > balance;
        ensures result + amount == balance;
    }

    /// What is left after a withdrawal and its fee, which are taken one after the other.
    fun withdraw_with_fee(balance: u64, amount: u64, fee: u64): u64 {
        balance - amount - fee
    }
    spec withdraw_with_fee {
        aborts_if amount + fee > balance;
        ensures result == balance - (amount + fee);
        ensures result <= balance;
    }

    /// The same, taken at once: it aborts for the same arguments, but also where the two leave u64 together.
    fun withdraw_at_once(balance: u64, amount: u64, fee: u64): u64 {
        balance - (amount + fee)
    }
    // Two spec blocks of one function add up.
    spec withdraw_at_once {
        aborts_if amount + fee > balance;
    }
    spec withdraw_at_once {
        ensures result + (amount + fee) == balance;
    }

    // ---- a transfer between two accounts ----

    /// The sender's balance after a transfer.
    #[view]
    fun sender_after(sender: u64, amount: u64): u64 { sender - amount }
    spec sender_after {
        requires amount <= sender;
        aborts_if false;
        ensures result == sender - amount;
    }

    /// The receiver's balance after a transfer.
    #[view]
    fun receiver_after(sender: u64, receiver: u64, amount: u64): u64 {
        receiver + amount
    }
    spec receiver_after {
        // The total of both fits, so that no transfer between them can leave u64.
        requires sender + receiver <= MAX_U64;
        requires amount <= sender;
        aborts_if false;
        ensures result <= sender + receiver;
    }

    /// Nothing is made and nothing is lost: what both have after a transfer, added up.
    fun total_after(sender: u64, receiver: u64, amount: u64): u64 {
        (sender - amount) + (receiver + amount)
    }
    spec total_after {
        requires sender + receiver <= MAX_U64;
        aborts_if amount > sender;
        ensures result == sender + receiver;
    }

    // ---- shares of a pool ----

    /// The supply after shares are minted for three owners at once.
    fun mint(supply: u64, first: u64, second: u64, third: u64): u64 {
        supply + first + second + third
    }
    spec mint {
        aborts_if supply + first + second + third > MAX_U64;
        ensures result == supply + (first + second + third);
        ensures result >= supply;
    }

    /// The supply after an owner's shares are burned and others are minted.
    fun exchange(supply: u64, burned: u64, minted: u64): u64 {
        supply - burned + minted
    }
    spec exchange {
        aborts_if burned > supply;
        aborts_if supply - burned + minted > MAX_U64;
        ensures result + burned == supply + minted;
    }

    // ---- limits ----

    /// How much may still be deposited below a cap of 1,000,000 units.
    #[view]
    fun room(balance: u64): u64 { 1_000_000 - balance }
    spec room {
        aborts_if balance > 1_000_000;
        ensures result + balance == 1000000;
        ensures result <= 0xF4240;
    }

    /// The reserve after three payments of which each is covered by a part of its own.
    fun reserve_after(
        reserve: u64,
        wages: u64,
        rent: u64,
        taxes: u64,
        wages_cover: u64,
        rent_cover: u64,
        taxes_cover: u64
    ): u64 {
        ((reserve - wages) - rent) - taxes
    }
    spec reserve_after {
        requires wages <= wages_cover;
        requires rent <= rent_cover;
        requires taxes <= taxes_cover;
        requires (wages_cover + rent_cover + taxes_cover) == reserve;
        aborts_if false;
        ensures result + (wages + rent + taxes) == reserve;
    }

    /// A value that no deposit reaches.
    #[test_only]
    fun sentinel(): u64 { 18446744073709551615 }
    spec sentinel {
        ensures result == MAX_U64;
    }

    // A function without a spec has nothing to prove.
    fun identity(amount: u64): u64 { amount }
}
