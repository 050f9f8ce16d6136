main() {
    int lines;
    int bytes;
    GS_On();
    sorted("A", "S");
    uniq("S", "U");
    count("U", lines, bytes);
    printf("%d %d\n", lines, bytes);
    GS_Off(0);
}
