# Prints the environment's NAME as a message has it; after share/safe.awk.
BEGIN { printf "%s", safe(ENVIRON["NAME"]) }
