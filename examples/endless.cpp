int main() {
    while (true) {
        ;
    }
}
