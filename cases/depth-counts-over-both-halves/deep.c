u32 n; __critical void two(void){n=n+1;} __critical void one(void){two();} void f(u32 d){if(d){f(d-1);}else{one();}}
