/* Nothing at all: what a run costs beside its turns. */
int main(void) {
    return 0;
}
