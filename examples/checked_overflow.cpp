int main() {
    int n = 2147483647;
    contract_assert(n + 1 > n);
    return 0;
}
