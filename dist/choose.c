/* Starts the build of the program that this processor runs fastest. */
int main_v2(int argc, char **argv, char **envp);
int main_v3(int argc, char **argv, char **envp);

int main(int argc, char **argv, char **envp) {
    __builtin_cpu_init();
    return (__builtin_cpu_supports("x86-64-v3") ? main_v3 : main_v2)(argc, argv, envp);
}
