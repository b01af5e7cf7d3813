// An ordinary program of a given size: functions that lock, compute and print.

const HEAD: &str = "#include <pthread.h>\n#include <stdio.h>\n#define LIMIT 16\n\
static pthread_mutex_t checking = PTHREAD_MUTEX_INITIALIZER, savings = PTHREAD_MUTEX_INITIALIZER;\n\
pthread_cond_t ready = PTHREAD_COND_INITIALIZER;\n\
int balance = 100, total;\nint entries[LIMIT] = {1, -2, 3};\n\n";

// One function; its number makes its name.
fn function(number: usize) -> String {
    format!(
        "/* pays in, and keeps the account number {number} */\n\
void pay_in_{number}(int amount, int account) {{\n\
    int before = balance;\n\
    pthread_mutex_lock(&checking);\n\
    while (entries[account % LIMIT] > 0 && before != amount) {{\n\
        pthread_cond_wait(&ready, &checking);\n\
        before = before + 1; // one more\n\
    }}\n\
    balance += amount * (account + 1);\n\
    entries[account % LIMIT]++;\n\
    pthread_mutex_unlock(&checking);\n\
    if (before < LIMIT || !amount) {{\n\
        printf(\"account %d: %d\\n\", account, balance);\n\
    }} else {{\n\
        for (int i = 0; i < LIMIT; i++) {{\n\
            total = total + entries[i] / 2 - {number};\n\
        }}\n\
    }}\n\
}}\n\n"
    )
}

const END: &str = "void *serve(void *arg) {\n    int account = (int)(long)arg;\n    pay_in_0(1, account);\n    \
return NULL;\n}\n\nint main(void) {\n    pthread_t t[2];\n    pthread_create(&t[0], NULL, serve, (void *)1);\n    \
pthread_create(&t[1], NULL, serve, NULL);\n    pthread_join(t[0], NULL);\n    pthread_join(t[1], NULL);\n    \
return total;\n}\n";

/// The text, which is filled up with blanks.
pub fn program(bytes: usize) -> Vec<u8> {
    let mut text = HEAD.to_string();
    for number in 0.. {
        let next = function(number);
        if text.len() + next.len() + END.len() > bytes {
            break;
        }
        text.push_str(&next);
    }
    text.push_str(END);
    let mut text = text.into_bytes();
    text.resize(bytes.max(text.len()), b'\n');
    text
}
