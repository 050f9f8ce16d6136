main() {
    int lines, bytes;
    GS_On();
    sorted("words", "scratch");
    uniq("scratch", "scratch");
    column("scratch", 1, "names");
    count("names", &lines, &bytes);
    printf("%d names, %d bytes\n", lines, bytes);
    GS_Off(0);
}
