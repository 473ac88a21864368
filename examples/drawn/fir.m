% A low pass of 15 taps: a sinc of a quarter of the rate under a Hann window.
Fs = 48000;          % Hz
W = 16;              % bits
n = 0:14;
c = n - 7;
w = 0.5 - 0.5*cos(2*pi*(n + 1)/16);
g = [sin(pi*c(1:7)/2)./(pi*c(1:7)), 0.5, sin(pi*c(9:15)/2)./(pi*c(9:15))];
h = round(2^15*(g .* w))/2^15;
