Ts = 1/16000;
mu = 0.03;              % the step of learning
W = fixdt(1, 24, 20);   % of the weights
