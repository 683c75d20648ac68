/* The program of the rows begins here; src/driver.rs says what it does. */
int bench_rows(void);

int main(void) {
    return bench_rows();
}
