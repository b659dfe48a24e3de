contract_assert(level >= 0);
contract_assert(level < 3);
