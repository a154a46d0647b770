# Sourced by the scripts here, in the folder tests: builds the fuzzer around an archive.
sanitized="-std=c11 -O1 -g -Wall -Wextra -Werror -fsanitize=address,undefined -fno-sanitize-recover=all -I../include"

# compile_fuzz FOLDER: the fuzzer's objects
compile_fuzz() {
    local part
    for part in calls damage fuzz guarded random sheet; do
        "${CC:-gcc}" $sanitized -c "fuzz/$part.c" -o "$1/$part.o"
    done
}

# link_fuzz FOLDER ARCHIVE PROGRAM
link_fuzz() {
    "${CC:-gcc}" $sanitized "$1"/{calls,damage,fuzz,guarded,random,sheet}.o "$2" -lpthread -ldl -lm -o "$3"
}
