Tsym = 4e-6;
A = 1/sqrt(4)/2;   % a quarter
rrc = [-3 -7 0 22 48 59 48 22 0 -7 -3]/2^7;
