// Calls all of them.
extern long long run_ledger(int);
extern int run_words(const char *);
extern double run_shapes(unsigned);
extern "C" int run_queue(struct queue *, int);

int main(int count, char **words) {
    return run_ledger(count) + run_words(words[0]) + static_cast<int>(run_shapes(count)) + run_queue(nullptr, count);
}
