/// Names that accounts register, in the order in which they came.
module 0x4e6::registry {
    use std::signer;
    use std::vector;

    const OWNER: address = @0x4e6;
    const LIMIT: u64 = 1000;

    const EFULL: u64 = 1;
    const ETAKEN: u64 = 2;
    const EUNKNOWN: u64 = 3;
    const ENOT_HOLDER: u64 = 4;

    struct Entry has copy, drop, store { name: u128, holder: address }

    struct Registry has key { entries: vector<Entry> }

    spec Registry {
        invariant len(entries) <= LIMIT;
        invariant forall i in 0..len(entries), j in 0..len(entries): entries[i].name == entries[j].name ==> i == j;
    }

    spec fun knows(entries: vector<Entry>, name: u128): bool {
        exists i in 0..len(entries): entries[i].name == name
    }

    public fun initialize(owner: &signer) {
        move_to(owner, Registry { entries: vector[] })
    }
    spec initialize {
        aborts_if exists<Registry>(signer::address_of(owner));
        ensures len(global<Registry>(signer::address_of(owner)).entries) == 0;
    }

    /// The index of a name, or the number of entries where it is not there.
    fun find(entries: &vector<Entry>, name: u128): u64 {
        let i = 0;
        let count = vector::length(entries);
        while ({
            spec {
                invariant i <= count && count == len(entries);
                invariant forall j in 0..i: entries[j].name != name;
            };
            i < count
        }) {
            if (vector::borrow(entries, i).name == name) return i;
            i = i + 1;
        };
        i
    }
    spec find {
        aborts_if false;
        ensures result <= len(entries);
        ensures result < len(entries) ==> entries[result].name == name;
        ensures result == len(entries) ==> !knows(entries, name);
    }

    public fun register(account: &signer, name: u128) acquires Registry {
        let registry = borrow_global_mut<Registry>(OWNER);
        let count = vector::length(&registry.entries);
        assert!(count < LIMIT, EFULL);
        assert!(find(&registry.entries, name) == count, ETAKEN);
        vector::push_back(&mut registry.entries, Entry { name, holder: signer::address_of(account) });
    }
    spec register {
        let before = global<Registry>(OWNER).entries;
        let post after = global<Registry>(OWNER).entries;
        aborts_if !exists<Registry>(OWNER);
        aborts_if len(before) >= LIMIT;
        aborts_if knows(before, name);
        modifies global<Registry>(OWNER);
        ensures len(after) == len(before) + 1;
        ensures forall i in 0..len(before): after[i] == before[i];
        ensures after[len(before)].name == name && after[len(before)].holder == signer::address_of(account);
    }

    public fun holder_of(name: u128): address acquires Registry {
        let entries = &borrow_global<Registry>(OWNER).entries;
        let i = find(entries, name);
        assert!(i < vector::length(entries), EUNKNOWN);
        vector::borrow(entries, i).holder
    }
    spec holder_of {
        let entries = global<Registry>(OWNER).entries;
        aborts_if !exists<Registry>(OWNER);
        aborts_if !knows(entries, name);
        ensures exists i in 0..len(entries): entries[i].name == name && entries[i].holder == result;
    }

    /// The holder gives a name to another account.
    public fun give(account: &signer, name: u128, to: address) acquires Registry {
        let entries = &mut borrow_global_mut<Registry>(OWNER).entries;
        let i = find(entries, name);
        assert!(i < vector::length(entries), EUNKNOWN);
        let entry = vector::borrow_mut(entries, i);
        assert!(entry.holder == signer::address_of(account), ENOT_HOLDER);
        entry.holder = to
    }
    spec give {
        aborts_if !exists<Registry>(OWNER);
        modifies global<Registry>(OWNER);
        ensures len(global<Registry>(OWNER).entries) == len(old(global<Registry>(OWNER).entries));
    }

    /// The last name that came is struck off by the owner.
    public fun strike_last(owner: &signer): Entry acquires Registry {
        let registry = borrow_global_mut<Registry>(signer::address_of(owner));
        vector::pop_back(&mut registry.entries)
    }
    spec strike_last {
        let who = signer::address_of(owner);
        let before = global<Registry>(who).entries;
        aborts_if !exists<Registry>(who) || len(before) == 0;
        modifies global<Registry>(who);
        ensures result == before[len(before) - 1];
    }
}
