u32 count; __critical void bump(void){count=count+1;} void go(u32 n){while(n){bump(); n=n-1;}}
