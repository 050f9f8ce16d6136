main() {
    int day;
    char *name;
    GS_On();
    for (day = 1; day <= 3; day++) {
        sprintf(name, "day%d.log", day);
        errors(name, "scratch");
        ordered("scratch");
        add("scratch", name, "report");
    }
    GS_Off(0);
}
