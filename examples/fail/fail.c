main() {
    GS_On();
    prepare(7, "job");
    fetch("job", "result");
    printf("done\n");
    GS_Off(0);
}
