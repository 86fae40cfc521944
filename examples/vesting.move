/// Money that is set free over time: nothing before a cliff, and from then on a part that grows evenly to the end.
module 0x7e5::vesting {
    use std::signer;
    use 0xc01::coin;

    friend 0x7e5::payroll;

    const EBAD_TIMES: u64 = 1;
    const ENOTHING_DUE: u64 = 2;

    struct Grant has key {
        locked: coin::Coin,
        /// How much was granted in all.
        total: u64,
        start: u64,
        cliff: u64,
        end: u64,
        /// How much was taken out so far.
        taken: u64,
    }

    spec Grant {
        invariant start <= cliff && cliff <= end && start < end;
        invariant taken <= total;
        invariant locked.value == total - taken;
    }

    spec fun due(total: num, start: num, cliff: num, end: num, now: num): num {
        if (now < cliff) 0 else if (now >= end) total else total * (now - start) / (end - start)
    }

    public(friend) fun grant(account: &signer, locked: coin::Coin, start: u64, cliff: u64, end: u64) {
        assert!(start <= cliff && cliff <= end && start < end, EBAD_TIMES);
        let total = coin::value(&locked);
        move_to(account, Grant { locked, total, start, cliff, end, taken: 0 })
    }
    spec grant {
        let owner = signer::address_of(account);
        aborts_if start > cliff || cliff > end || start >= end;
        aborts_if exists<Grant>(owner);
        ensures global<Grant>(owner).locked == locked;
        ensures global<Grant>(owner).taken == 0;
    }

    /// How much is free at a time.
    public fun free_at(total: u64, start: u64, cliff: u64, end: u64, now: u64): u64 {
        if (now < cliff) {
            0
        } else if (now >= end) {
            total
        } else {
            let passed = ((now - start) as u128);
            let whole = ((end - start) as u128);
            ((total as u128) * passed / whole as u64)
        }
    }
    spec free_at {
        requires start <= cliff && cliff <= end && start < end;
        aborts_if false;
        ensures result == due(total, start, cliff, end, now);
        ensures result <= total;
    }

    /// Takes out what is free and was not taken yet.
    public fun claim(account: &signer, now: u64): coin::Coin acquires Grant {
        let grant = borrow_global_mut<Grant>(signer::address_of(account));
        let free = free_at(grant.total, grant.start, grant.cliff, grant.end, now);
        assert!(free > grant.taken, ENOTHING_DUE);
        let amount = free - grant.taken;
        grant.taken = free;
        coin::split(&mut grant.locked, amount)
    }
    spec claim {
        let owner = signer::address_of(account);
        let grant = global<Grant>(owner);
        let free = due(grant.total, grant.start, grant.cliff, grant.end, now);
        aborts_if !exists<Grant>(owner);
        aborts_if free <= grant.taken;
        modifies global<Grant>(owner);
        ensures global<Grant>(owner).taken == free;
        ensures result.value == free - grant.taken;
    }
}

/// Who may grant.
module 0x7e5::payroll {
    use std::signer;
    use 0xc01::coin::Coin;
    use 0x7e5::vesting;

    const EMPLOYER: address = @0x7e5;
    const YEAR: u64 = 365 * 24 * 60 * 60;

    const ENOT_EMPLOYER: u64 = 1;

    /// Four years, of which nothing is free before the first is over.
    public fun hire(employer: &signer, employee: &signer, money: Coin, now: u64) {
        assert!(signer::address_of(employer) == EMPLOYER, ENOT_EMPLOYER);
        vesting::grant(employee, money, now, now + YEAR, now + 4 * YEAR)
    }
    spec hire {
        aborts_if signer::address_of(employer) != EMPLOYER;
        aborts_if now + 4 * YEAR > MAX_U64;
        aborts_if exists<vesting::Grant>(signer::address_of(employee));
    }
}
