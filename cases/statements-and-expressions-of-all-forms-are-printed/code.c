struct s{u32 v;struct s*next;u8 t[4];};struct s*g;u32 a,b,c,d,e;u32*w;void(*p)(u32);u32 x;void*v;
u32 f(void){return 1;}
struct s*h(void){return g;}
void k(u32 i,u32 j){}
void later(u32 n){x=n;}
__critical void expressions(void){x=a||b&&c|d^e&a==b<c<<d+e*a;x=a-b-c;x=a*b/c%d;x=-~!+*&a;x=- -a+b- -c;x=(u32)a+*(u32*)v;
x=(u8)(s64)a;x=(a+b)*c;x=a+b*c;x=(w+1)[2]+5[w]+w[a+1];x=(*g).next->t[1];x=(((a)));x='a'+'\0'+0x10ul+010+4294967295+0xffffffff+18446744073709551615u+1ll;
w=NULL;w=&g->v;w=&*w;v=&g->t[1];x=a<=b!=c>=d;x=a>>b>c;x=!w;x=-g->v;p=later;p=&later;(x)=a;*w=b;((*w))=c;g->next->t[a]=1;}
u32 statements(u32 n){;{}{a=1;}a+=1;b<<=c;b>>=c;a-=1;a*=2;a/=3;a%=4;a&=5;a|=6;a^=7;*w=b;k(1,b);k(a+1,-b);k((a),(u8)b);x=f();p(1);(p)(2);(*p)(3);expressions();
while(a){break;continue;}if(a)b=1;if(a);else b=1;if(a)if(b)c=1;else d=2;if(a){if(b)c=1;}else d=2;if(a)b=1;else if(c)d=1;else e=1;if(a){}else{}
if(a)while(b)if(c)d=1;else e=2;else x=3;while(a<b)a=a+1;for(;;);for(u32 i=0,j;i<4;i+=1)x=i;for(struct s*i=g,*j=i;j;)break;for(a=0;;f())continue;for(f();a;x=f()){u32 i;}
u32 y,*z=w,o[2];char t[6]="a\n\t\r\0\"";struct s*r=h();printk(KERN_ERR"a%d\\\'%%\n",b);r=kzalloc(struct s);r=kcalloc(2,struct s);z=kcalloc(n,u32);if(n)return f();return a+1;}
void leave_early(void){if(a)return;}
