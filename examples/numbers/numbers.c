main() {
    int low = 0, high = 1000, middle, sign;
    char *word;
    GS_On();
    while (high - low > 1) {
        middle = (low + high) / 2;
        compare("target", middle, &sign);
        if (sign > 0) high = middle;
        else low = middle;
    }
    compare("target", low, &sign);
    name(sign, &word);
    printf("the square of %d is %s the target\n", low, word);
    GS_Off(0);
}
