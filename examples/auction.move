/// An auction of one item: the highest bid stands until the end, and a bid that is passed is paid back.
module 0xa0c::auction {
    use std::signer;
    use 0xc01::coin::{Self as money, Coin};

    const ETOO_LOW: u64 = 1;
    const EENDED: u64 = 2;
    const ENOT_ENDED: u64 = 3;
    const ENOT_SELLER: u64 = 4;

    struct Bid has store { bidder: address, money: Coin }

    struct Auction<Item: store> has key {
        item: Item,
        /// The least that the next bid may be.
        reserve: u64,
        /// The time from which on no bid is taken.
        end: u64,
        best: Bid,
    }

    spec Auction {
        invariant best.money.value <= MAX_U64;
    }

    public fun start<Item: store>(seller: &signer, item: Item, reserve: u64, end: u64) {
        let best = Bid { bidder: signer::address_of(seller), money: money::zero() };
        move_to(seller, Auction { item, reserve, end, best })
    }
    spec start {
        let owner = signer::address_of(seller);
        aborts_if exists<Auction<Item>>(owner);
        ensures global<Auction<Item>>(owner).item == item;
        ensures highest<Item>(owner) == 0;
    }

    spec fun highest<Item: store>(seller: address): num { global<Auction<Item>>(seller).best.money.value }

    spec fun least_bid<Item: store>(seller: address): num {
        if (highest<Item>(seller) >= global<Auction<Item>>(seller).reserve)
            highest<Item>(seller) + 1
        else global<Auction<Item>>(seller).reserve
    }

    /// Bids, and gets back the bid that is passed, with whom it is from.
    public fun bid<Item: store>(bidder: &signer, seller: address, money: Coin, now: u64): (address, Coin) acquires Auction {
        let auction = borrow_global_mut<Auction<Item>>(seller);
        assert!(now < auction.end, EENDED);
        let offered = money::value(&money);
        let best = money::value(&auction.best.money);
        assert!(offered >= auction.reserve && offered > best, ETOO_LOW);
        let passed = money::split(&mut auction.best.money, best);
        money::join(&mut auction.best.money, money);
        let whose = auction.best.bidder;
        auction.best.bidder = signer::address_of(bidder);
        (whose, passed)
    }
    spec bid {
        let auction = global<Auction<Item>>(seller);
        let post after = global<Auction<Item>>(seller);
        aborts_if !exists<Auction<Item>>(seller);
        aborts_if now >= auction.end;
        aborts_if money.value < least_bid<Item>(seller) || money.value == 0 && highest<Item>(seller) == 0;
        modifies global<Auction<Item>>(seller);
        ensures after.best.money == money && after.best.bidder == signer::address_of(bidder);
        ensures result_1 == auction.best.bidder && result_2 == auction.best.money;
        ensures highest<Item>(seller) > old(highest<Item>(seller));
        ensures forall a: address: a != seller ==> global<Auction<Item>>(a) == old(global<Auction<Item>>(a));
    }

    /// After the end the seller gets the money, and whoever bid most the item.
    public fun finish<Item: store>(seller: &signer, now: u64): (address, Item, Coin) acquires Auction {
        let owner = signer::address_of(seller);
        let Auction { item, reserve: _, end, best } = move_from<Auction<Item>>(owner);
        assert!(now >= end, ENOT_ENDED);
        let Bid { bidder, money } = best;
        (bidder, item, money)
    }
    spec finish {
        let owner = signer::address_of(seller);
        aborts_if !exists<Auction<Item>>(owner);
        aborts_if now < global<Auction<Item>>(owner).end;
        ensures !exists<Auction<Item>>(owner);
        ensures result_2 == old(global<Auction<Item>>(owner).item);
    }
}
