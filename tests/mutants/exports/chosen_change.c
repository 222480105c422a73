/* The number of the change that a run calls (run.py): CHANGE of its environment, 0 for none. */
char *getenv(const char *);
int atoi(const char *);

unsigned chosen_change;

__attribute__((constructor)) static void choose(void) {
    const char *number = getenv("CHANGE");
    chosen_change = number ? (unsigned)atoi(number) : 0;
}
