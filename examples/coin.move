/// A coin with a treasury that mints up to a cap.
module 0xc01::coin {
    use std::signer;

    /// The account that mints.
    const ADMIN: address = @0xc01;
    const MAX_SUPPLY: u64 = 1_000_000_000;

    const ENOT_ADMIN: u64 = 1;
    const EZERO_COIN: u64 = 2;
    const EOVER_CAP: u64 = 3;
    const EINSUFFICIENT: u64 = 4;

    /// An amount of money. It can be neither copied nor dropped.
    struct Coin has store { value: u64 }

    /// The money of an account.
    struct Balance has key { coin: Coin }

    /// What was minted and what was burned so far.
    struct Treasury has key { minted: u64, burned: u64 }

    spec Treasury {
        invariant burned <= minted;
        invariant minted - burned <= MAX_SUPPLY;
    }

    spec module {
        pragma aborts_if_is_strict;
        invariant update old(exists<Treasury>(ADMIN)) ==>
            global<Treasury>(ADMIN).minted >= old(global<Treasury>(ADMIN).minted);
    }

    public entry fun initialize(admin: &signer) {
        assert!(signer::address_of(admin) == ADMIN, ENOT_ADMIN);
        move_to(admin, Treasury { minted: 0, burned: 0 })
    }
    spec initialize {
        let owner = signer::address_of(admin);
        aborts_if owner != ADMIN;
        aborts_if exists<Treasury>(owner);
        ensures global<Treasury>(ADMIN).minted == 0;
        ensures global<Treasury>(ADMIN).burned == 0;
    }

    public entry fun open(account: &signer) {
        move_to(account, Balance { coin: Coin { value: 0 } })
    }
    spec open {
        let owner = signer::address_of(account);
        aborts_if exists<Balance>(owner);
        ensures global<Balance>(owner).coin.value == 0;
    }

    public fun value(coin: &Coin): u64 { coin.value }
    spec value { aborts_if false; ensures result == coin.value; }

    public fun zero(): Coin { Coin { value: 0 } }
    spec zero { aborts_if false; ensures result.value == 0; }

    public fun destroy_zero(coin: Coin) {
        let Coin { value } = coin;
        assert!(value == 0, EZERO_COIN)
    }
    spec destroy_zero { aborts_if coin.value != 0; }

    public fun mint(admin: &signer, amount: u64): Coin acquires Treasury {
        assert!(signer::address_of(admin) == ADMIN, ENOT_ADMIN);
        let treasury = borrow_global_mut<Treasury>(ADMIN);
        assert!(treasury.minted - treasury.burned <= MAX_SUPPLY - amount, EOVER_CAP);
        treasury.minted = treasury.minted + amount;
        Coin { value: amount }
    }
    spec mint {
        include OnlyAdmin { account: admin };
        let before = global<Treasury>(ADMIN);
        let post after = global<Treasury>(ADMIN);
        aborts_if before.minted - before.burned + amount > MAX_SUPPLY;
        aborts_if before.minted + amount > MAX_U64;
        modifies global<Treasury>(ADMIN);
        ensures after.minted == before.minted + amount;
        ensures after.burned == before.burned;
        ensures result.value == amount;
    }

    public fun burn(coin: Coin) acquires Treasury {
        let Coin { value } = coin;
        let treasury = borrow_global_mut<Treasury>(ADMIN);
        treasury.burned = treasury.burned + value
    }
    spec burn {
        requires exists<Treasury>(ADMIN);
        requires global<Treasury>(ADMIN).burned + coin.value <= global<Treasury>(ADMIN).minted;
        aborts_if false;
        modifies global<Treasury>(ADMIN);
        ensures global<Treasury>(ADMIN).burned == old(global<Treasury>(ADMIN).burned) + coin.value;
    }

    /// Takes an amount out of a coin.
    public fun split(coin: &mut Coin, amount: u64): Coin {
        assert!(coin.value >= amount, EINSUFFICIENT);
        coin.value = coin.value - amount;
        Coin { value: amount }
    }
    spec split {
        aborts_if coin.value < amount;
        ensures coin.value == old(coin.value) - amount;
        ensures result.value == amount;
    }

    /// Puts one coin into another.
    public fun join(coin: &mut Coin, other: Coin) {
        let Coin { value } = other;
        coin.value = coin.value + value
    }
    spec join {
        aborts_if coin.value + other.value > MAX_U64;
        ensures coin.value == old(coin.value) + other.value;
    }

    public fun withdraw(account: &signer, amount: u64): Coin acquires Balance {
        let balance = borrow_global_mut<Balance>(signer::address_of(account));
        split(&mut balance.coin, amount)
    }
    spec withdraw {
        let owner = signer::address_of(account);
        include HasBalance { owner };
        aborts_if global<Balance>(owner).coin.value < amount;
        modifies global<Balance>(owner);
        ensures global<Balance>(owner).coin.value == old(global<Balance>(owner).coin.value) - amount;
        ensures result.value == amount;
    }

    public fun deposit(to: address, coin: Coin) acquires Balance {
        let balance = borrow_global_mut<Balance>(to);
        join(&mut balance.coin, coin)
    }
    spec deposit {
        include HasBalance { owner: to };
        aborts_if global<Balance>(to).coin.value + coin.value > MAX_U64;
        modifies global<Balance>(to);
        ensures global<Balance>(to).coin.value == old(global<Balance>(to).coin.value) + coin.value;
    }

    public entry fun transfer(from: &signer, to: address, amount: u64) acquires Balance {
        let coin = withdraw(from, amount);
        deposit(to, coin)
    }
    spec transfer {
        let owner = signer::address_of(from);
        include HasBalance { owner };
        include HasBalance { owner: to };
        aborts_if global<Balance>(owner).coin.value < amount;
        aborts_if owner != to && global<Balance>(to).coin.value + amount > MAX_U64;
        ensures owner != to ==>
            global<Balance>(owner).coin.value == old(global<Balance>(owner).coin.value) - amount
            && global<Balance>(to).coin.value == old(global<Balance>(to).coin.value) + amount;
        ensures owner == to ==> global<Balance>(to) == old(global<Balance>(to));
    }

    spec schema OnlyAdmin {
        account: signer;
        aborts_if signer::address_of(account) != ADMIN;
        aborts_if !exists<Treasury>(ADMIN);
    }

    spec schema HasBalance {
        owner: address;
        aborts_if !exists<Balance>(owner);
    }
}
