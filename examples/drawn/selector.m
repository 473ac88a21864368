Ts = 1e-3; offset = 100;
modes = [1 4 9];
