int main() {
    int n = 1;
    while (true) {
        n = n * 2;
    }
}
