main() {
    int i;
    GS_On();
    for (i = 1; i <= 6; i++) {
        subst("base.cfg", i, "job.tmp");
        simulate("job.tmp", "res.tmp");
        post("res.tmp", "all.txt");
    }
    printf("%d runs\n", i - 1);
    GS_Off(0);
}
