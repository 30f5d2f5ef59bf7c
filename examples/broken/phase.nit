phase
