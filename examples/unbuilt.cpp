int twice(int n) { return n + n; }

int main() { return twice(3); }
