/* Runs a source and prints its report. Build and run, after ./mx library built:
   cc -Ibuilt examples/embed/run.c built/libzanderanvil.a -o run && ./run */
#include <stdio.h>
#include <zanderanvil.h>

int main(void)
{
    uint8_t output[4096], file[1];
    zanderanvil_call call = zanderanvil_ask("run\nsource\n--budget\n1000");
    call.source = zanderanvil_text("        addi r0,#72,r1\n"
                                   "        st   255[r0],r1\n"
                                   "        halt\n");
    zanderanvil_outcome outcome = zanderanvil_command(&call, output, sizeof output, file, sizeof file);
    if (outcome.status == ZANDERANVIL_TOO_SHORT)
        printf("a buffer of %zu bytes is wanted\n", outcome.output_needed);
    else
        fwrite(output, 1, outcome.output, stdout);
    return (int)outcome.status;
}
