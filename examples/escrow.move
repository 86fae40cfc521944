/// Two parties put an item and a price into an escrow, and a judge releases it to one of them.
module 0xe5c::escrow {
    use std::signer;
    use 0xc01::coin::{Self, Coin};

    const ENOT_PARTY: u64 = 1;
    const ENOT_JUDGE: u64 = 2;
    const ESETTLED: u64 = 3;

    /// The state of a deal: open, released to the seller, or paid back to the buyer.
    const OPEN: u8 = 0;
    const RELEASED: u8 = 1;
    const REFUNDED: u8 = 2;

    /// A deal stands at the address of its buyer.
    struct Deal<phantom Item> has key {
        seller: address,
        judge: address,
        price: Coin,
        fee_in_percent: u64,
        state: u8,
    }

    spec Deal {
        invariant fee_in_percent <= 100;
        invariant state <= 2;
        invariant state != 0 ==> price.value == 0;
    }

    public fun open<Item>(buyer: &signer, seller: address, judge: address, price: Coin, fee_in_percent: u64) {
        assert!(fee_in_percent <= 100, ENOT_PARTY);
        move_to(buyer, Deal<Item> { seller, judge, price, fee_in_percent, state: OPEN })
    }
    spec open {
        let owner = signer::address_of(buyer);
        aborts_if fee_in_percent > 100;
        aborts_if exists<Deal<Item>>(owner);
        ensures global<Deal<Item>>(owner) == Deal<Item> { seller, judge, price, fee_in_percent, state: 0 };
    }

    public fun price<Item>(buyer: address): u64 acquires Deal {
        coin::value(&borrow_global<Deal<Item>>(buyer).price)
    }
    spec price {
        aborts_if !exists<Deal<Item>>(buyer);
        ensures result == global<Deal<Item>>(buyer).price.value;
    }

    /// The fee of the judge, rounded down.
    public fun fee(price: u64, percent: u64): u64 {
        ((price as u128) * (percent as u128) / 100 as u64)
    }
    spec fee {
        requires percent <= 100;
        aborts_if false;
        ensures result == price * percent / 100;
        ensures result <= price;
    }

    /// The judge gives the price, less the fee, to the seller.
    public fun release<Item>(judge: &signer, buyer: address): (Coin, Coin) acquires Deal {
        let deal = borrow_global_mut<Deal<Item>>(buyer);
        assert!(signer::address_of(judge) == deal.judge, ENOT_JUDGE);
        settle(deal, RELEASED)
    }
    spec release {
        include Judged<Item>;
        ensures global<Deal<Item>>(buyer).state == RELEASED;
        ensures result_1.value + result_2.value == old(global<Deal<Item>>(buyer).price.value);
    }

    /// The judge gives the price, less the fee, back to the buyer.
    public fun refund<Item>(judge: &signer, buyer: address): (Coin, Coin) acquires Deal {
        let deal = borrow_global_mut<Deal<Item>>(buyer);
        assert!(signer::address_of(judge) == deal.judge, ENOT_JUDGE);
        settle(deal, REFUNDED)
    }
    spec refund {
        include Judged<Item>;
        ensures global<Deal<Item>>(buyer).state == REFUNDED;
        ensures result_1.value + result_2.value == old(global<Deal<Item>>(buyer).price.value);
    }

    fun settle<Item>(deal: &mut Deal<Item>, state: u8): (Coin, Coin) {
        assert!(deal.state == OPEN, ESETTLED);
        let whole = coin::value(&deal.price);
        let share = fee(whole, deal.fee_in_percent);
        let fee_coin = coin::split(&mut deal.price, share);
        let rest = coin::split(&mut deal.price, whole - share);
        deal.state = state;
        (rest, fee_coin)
    }
    spec settle {
        requires state == RELEASED || state == REFUNDED;
        aborts_if deal.state != OPEN;
        ensures deal.state == state;
        ensures result_1.value + result_2.value == old(deal.price.value);
    }

    /// A deal that is settled is closed by its buyer.
    public fun close<Item>(buyer: &signer) acquires Deal {
        let Deal<Item> { seller: _, judge: _, price, fee_in_percent: _, state } =
            move_from<Deal<Item>>(signer::address_of(buyer));
        assert!(state != OPEN, ESETTLED);
        coin::destroy_zero(price)
    }
    spec close {
        let owner = signer::address_of(buyer);
        aborts_if !exists<Deal<Item>>(owner);
        aborts_if global<Deal<Item>>(owner).state == OPEN;
        ensures !exists<Deal<Item>>(owner);
    }

    spec schema Judged<Item> {
        judge: signer;
        buyer: address;
        let deal = global<Deal<Item>>(buyer);
        aborts_if !exists<Deal<Item>>(buyer);
        aborts_if signer::address_of(judge) != deal.judge;
        aborts_if deal.state != OPEN;
        modifies global<Deal<Item>>(buyer);
    }
}
