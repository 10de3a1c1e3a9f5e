# The help of one command (variable `command`), or without it the list of all; over share/help.txt. Status 1: there is no such command.
/^:/ {
    here = substr($0, 2)
    line = 0
    next
}
command == "" {
    if (++line == 1) {
        if (!listed++) print "xmf COMMAND [OPTION].. [OPERAND]..   answers a question about XMF files, or writes one with another title.\n"
        print "  " $0
    } else if (line == 2)
        print "      " $0
}
command != "" && here == command {
    print
    listed++
}
END {
    if (command == "") {
        print "\nFILE may be - for standard input. Options stand anywhere before --. Files have at most 65,536 bytes."
        print "Status: 0 answered; 2 refused, or \"too long\"; 3 not Mobile XMF (verdict); 1 trouble; 141 nobody reads the output."
        print "xmf help COMMAND, or xmf COMMAND --help, says more; xmf --version says what this is."
    }
    exit !listed
}
