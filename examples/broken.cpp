int main() {
    contract_assert(1 < );
}
