int main() {
    int k = 0;
    while (k < 2) {
        contract_assert(k < 0);
        k = k + 1;
    }
    return k;
}
