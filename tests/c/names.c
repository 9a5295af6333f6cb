/* Prints the version, and each name that the library has of a number of an enum. */
#include "chihome.h"

#include <stdio.h>
#include <string.h>

static void print_names(const char *word, const char *(*name_of)(uint8_t)) {
    for (int number = 0; number < 256; number++) {
        const char *name = name_of((uint8_t)number);
        if (strcmp(name, "?") != 0) printf("%s %d %s\n", word, number, name);
    }
}

int main(void) {
    printf("%s\n", chi_version());
    print_names("Answer", chi_refusal_name);
    print_names("Step", chi_step_name);
    print_names("Kind", chi_kind_name);
    print_names("State", chi_state_name);
    print_names("Message", chi_message_name);
    print_names("Reason", chi_reason_name);
    print_names("Opcode", chi_opcode_name);
    print_names("Resp", chi_resp_name);
    print_names("ObserverReason", chi_observer_reason_name);
    return 0;
}
