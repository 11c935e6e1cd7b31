int Mb(void) {
}
