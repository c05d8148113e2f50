// Compiled without debug information: its function is known as a public symbol alone.
int plain(int a, int b) { return a * 31 + b; }
