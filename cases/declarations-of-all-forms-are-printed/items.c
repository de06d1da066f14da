#define LIMIT 0x10
#define LOW  - 3ul
struct dev{static const u32 a,*b;s8 name[LIMIT];char*text __nullterm;unsigned short(*act)(u32,struct dev*);struct dev*all __array(LIMIT);struct dev*list __sentinel(a);};
struct in{u32 x;u32*y;u8 z[6];void*w __opaque;};
enum{A,B=3,C=-1,D=C,};
u8 a;u64 b;char c;signed char d;unsigned char e;short f;int g;unsigned h;unsigned int i;long j;unsigned long k;
combolock_t l,m[2];
volatile u32*p[4]__array(a),**pp;
u32 t[2]={LIMIT,-1,};
long n[5]={0x10,010,'a',LOW,-7u};
struct in q={.x=1,.y=&h,.z="a\n\0\\\""},r={2,NULL,{1,'a'}},s,v[2]={{.y=NULL},{5}};
static u32*make(u32,struct dev*d __array(4))__opaque;
void hook(void(*h)(void),u32(*)(u32 a,void*));
inline __critical struct dev*find(u32 n){return NULL;}
u32*make(u32 n,struct dev*d __array(4))__opaque{return d->b;}
void hook(void(*h)(void),u32(*other)(u32 a,void*b)){h();}
static const void last(void){}
void(*hooks[2])(void),(*first)(void)=&last;
