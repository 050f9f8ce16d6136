main() { GS_On(); printf("no task\n"); GS_Off(0); }
