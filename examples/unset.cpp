int main() {
    int n = n + 1;
    return n;
}
