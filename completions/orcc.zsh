#compdef @NAME@
# Completes the commands of orcc in zsh.
_arguments '1:command:((
    asm\:"an image with code for SSE2"
    asm41\:"an image with code for SSSE3 and SSE4.1"
    c\:"C11"
    check\:"need, lanes and cost of each function"
    check41\:"the same for code of asm41"
    dis\:"the listing of an image or an object"
    emulate\:"the result of a job, by the meaning of the text"
    fmt\:"the canonical text"
    gen\:"sums and steps of functions made from a number"
    header\:"a C header with the prototypes"
    jobs\:"the result of a job in parts"
    lib\:"an object called by prototype, for SSE2"
    lib41\:"an object called by prototype, for SSSE3 and SSE4.1"
    obj\:"an object called by a block"
    run\:"the result of a job, by the code of an image"))' '*:number:'
