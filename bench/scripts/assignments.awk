# Writes the assignments that compile.awk compiles.
BEGIN { srand(1); for (n = 0; n < 600; n++) printf "v%d=v%d*(v%d+%d)+v%d\n", n, int(rand()*(n+1)), int(rand()*(n+1)), n % 97, int(rand()*(n+1)) }
