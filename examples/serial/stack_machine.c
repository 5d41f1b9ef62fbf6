/* A small stack machine. Its program counts the steps from 27 down to 1, where an even number is halved
   and any other is taken three times and one. The exit code is what it halts with, which is 3. */
#include <stdio.h>

#define PUSH 0
#define LOAD 1
#define SAVE 2
#define ADD 3
#define MULTIPLY 4
#define HALVE 5
#define ODD 6
#define SAME 7
#define JUMP 8
#define JUMP_UNLESS 9
#define SHOW 10
#define HALT 11

#define LENGTH 50
#define STACK 8

/* Variable 0 is the number, 1 the count of steps. */
static int program[LENGTH] = {
    PUSH, 27, SAVE, 0, PUSH, 0, SAVE, 1,
    LOAD, 0, PUSH, 1, SAME, JUMP_UNLESS, 21, LOAD, 1, SHOW, PUSH, 3, HALT,
    LOAD, 0, ODD, JUMP_UNLESS, 36, LOAD, 0, PUSH, 3, MULTIPLY, PUSH, 1, ADD, JUMP, 39,
    LOAD, 0, HALVE,
    SAVE, 0, LOAD, 1, PUSH, 1, ADD, SAVE, 1, JUMP, 8
};
static int stack[STACK], variable[2];
static int height;

static void push(int number) {
    stack[height++] = number;
}

static int pop(void) {
    return stack[--height];
}

/* An instruction on the two uppermost numbers, or on the one. */
static void compute(int operation) {
    int right = pop();
    if (operation == ADD) {
        push(pop() + right);
    } else if (operation == MULTIPLY) {
        push(pop() * right);
    } else if (operation == SAME) {
        push(pop() == right);
    } else if (operation == HALVE) {
        push(right / 2);
    } else {
        push(right & 1);
    }
}

static int run(void) {
    int at = 0;
    while (program[at] != HALT) {
        int operation = program[at++];
        if (operation == PUSH) {
            push(program[at++]);
        } else if (operation == LOAD) {
            push(variable[program[at++]]);
        } else if (operation == SAVE) {
            int slot = program[at++];
            variable[slot] = pop();
        } else if (operation == JUMP) {
            at = program[at];
        } else if (operation == JUMP_UNLESS) {
            int target = program[at++];
            if (!pop())
                at = target;
        } else if (operation == SHOW) {
            printf("%d\n", pop());
        } else {
            compute(operation);
        }
    }
    return pop();
}

int main(void) {
    return run();
}
