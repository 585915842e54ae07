// peer DIR OP [REPEATS] : one operation of the benchmark with Healpix_cxx (Moc<int64>, rangeset, T_Healpix_Base<int64>).
// Prints: OP median first min checksum.  Healpix_cxx has no reader or writer of ASCII or JSON MOCs: those here are this file's own.
#include <algorithm>
#include <chrono>
#include <cstdio>
#include <cstdlib>
#include <functional>
#include <string>
#include <vector>
#include "healpix_base.h"
#include "moc.h"
using namespace std;
typedef Moc<int64> M;
struct Faces: T_Healpix_Base<int64> { using T_Healpix_Base<int64>::T_Healpix_Base; using T_Healpix_Base<int64>::xyf2nest; };
typedef unsigned long long u64;
static u64 state;
static u64 splitmix()
  {
  u64 z=(state+=0x9E3779B97F4A7C15ull);
  z=(z^(z>>30))*0xBF58476D1CE4E5B9ull; z=(z^(z>>27))*0x94D049BB133111EBull;
  return z^(z>>31);
  }
static string slurp(const string &name)
  {
  FILE *f=fopen(name.c_str(),"rb"); if (!f) { perror(name.c_str()); exit(1); }
  fseek(f,0,SEEK_END); long n=ftell(f); rewind(f);
  string s(n,0); if (fread(&s[0],1,n,f)!=size_t(n)) exit(1); fclose(f); return s;
  }
static M read_ascii(const string &s)
  {
  rangeset<int64> all, cur; int k=-1, shift=0; const char *p=s.c_str();
  while (true)
    {
    while (*p==' '||*p=='\n'||*p==',') ++p;
    if (!*p) break;
    char *q; int64 a=strtoll(p,&q,10);
    if (*q=='/')
      {
      all=all.op_or(cur); cur.clear(); k=int(a); shift=2*(29-k); p=q+1; continue;
      }
    int64 b=a; if (*q=='-') b=strtoll(q+1,&q,10);
    cur.append(a<<shift,(b+1)<<shift); p=q;
    }
  all=all.op_or(cur);
  M m; for (tsize i=0;i<all.nranges();++i) m.appendPixelRange(29,all.ivbegin(i),all.ivend(i));
  return m;
  }
static void number(string &out, int64 v) { char b[24]; int n=0; do { b[n++]=char('0'+v%10); v/=10; } while (v); while (n) out.push_back(b[--n]); }
static string write_ascii(const M &m)
  {
  vector<int64> u=m.toUniq(); string out; int last=-1;
  for (size_t i=0;i<u.size();)
    {
    int k=(63-__builtin_clzll(u[i]))/2-1; int64 a=u[i]-(int64(1)<<(2*k+2)), b=a;
    while (++i<u.size() && u[i]==u[i-1]+1 && u[i]<(int64(1)<<(2*k+4))) ++b;
    if (k!=last) { if (last>=0) out+=' '; number(out,k); out+='/'; last=k; } else out+=' ';
    number(out,a); if (b>a) { out+='-'; number(out,b); }
    }
  return out;
  }
static string write_json(const M &m)
  {
  vector<int64> u=m.toUniq(); string out="{"; int last=-1;
  for (size_t i=0;i<u.size();++i)
    {
    int k=(63-__builtin_clzll(u[i]))/2-1; int64 a=u[i]-(int64(1)<<(2*k+2));
    if (k!=last) { if (last>=0) out+="],"; out+='"'; number(out,k); out+="\":["; last=k; } else out+=',';
    number(out,a);
    }
  return out+(last>=0?"]}":"}");
  }
int main(int argc, char **argv)
  {
  if (argc<3) return 2;
  string dir=argv[1], op=argv[2]; int reps=argc>3?atoi(argv[3]):7;
  u64 check=0; M a,b; string text; vector<int64> adds;
  auto load=[&](const char *n) { return read_ascii(slurp(dir+"/"+n)); };
  function<u64()> job;
  if (op=="start") { printf("start 0 0 0 0\n"); return 0; }
  if (op=="read_a") { text=slurp(dir+"/moc_a.txt"); job=[&] { return u64(read_ascii(text).nval()); }; }
  else if (op=="ring13"||op=="ring29"||op=="nest13"||op=="nest29"||op=="near13"||op=="near29"||op=="border13"||op=="border29")
    {
    bool border=op.substr(0,6)=="border", near=border||op.substr(0,4)=="near"; size_t n=near?1000000:10000000;
    int k=atoi(op.c_str()+(border?6:4)); state=42; u64 top=12ull<<(2*k); adds.resize(n);
    if (border) { Faces faces(k,NEST); for (auto &x:adds) { int face=int(splitmix()%12); x=faces.xyf2nest(0,int(splitmix()%(1ull<<k)),face); } }
    else for (auto &x:adds) x=int64(splitmix()%top);
    bool ring=op.substr(0,4)=="ring";
    job=[&adds,k,near,ring]
      {
      T_Healpix_Base<int64> base(k,NEST); u64 sum=0;
      if (near) { fix_arr<int64,8> r; for (auto x:adds) { base.neighbors(x,r); for (int j=0;j<8;++j) if (r[j]>=0) sum+=u64(r[j]); } }
      else if (ring) for (auto x:adds) sum+=u64(base.nest2ring(x));
      else for (auto x:adds) sum+=u64(base.ring2nest(x));
      return sum;
      };
    }
  else if (op=="adds"||op=="adds_only")
    {
    text=slurp(dir+"/adds.txt"); const char *p=text.c_str(); char *q;
    while (*p) { int64 v=strtoll(p,&q,10); if (q==p) break; adds.push_back(v); p=q; while (*p=='\n') ++p; }
    bool each=op=="adds";
    job=[&adds,each] { M m; u64 sum=0; for (auto x:adds) { m.addPixelRange(13,x,x+1); if (each) sum+=u64(m.nval()); } return each ? sum : u64(m.nval()); };
    }
  else
    {
    a=load("moc_a.txt"); if (op=="union"||op=="intersection"||op=="difference"||op=="symmetric") b=load("moc_b.txt");
    if (op=="union") job=[&] { return u64(a.op_or(b).nval()); };
    else if (op=="intersection") job=[&] { return u64(a.op_and(b).nval()); };
    else if (op=="difference") job=[&] { return u64(a.op_andnot(b).nval()); };
    else if (op=="symmetric") job=[&] { return u64(a.op_xor(b).nval()); };
    else if (op=="complement") job=[&] { return u64(a.complement().nval()); };
    else if (op=="degrade10") job=[&] { return u64(a.degradedToOrder(10,true).nval()); };
    else if (op=="degrade13") job=[&] { return u64(a.degradedToOrder(13,true).nval()); };
    else if (op=="write_ascii") job=[&] { return u64(write_ascii(a).size()); };
    else if (op=="write_json") job=[&] { return u64(write_json(a).size()); };
    else if (op=="count") job=[&] { return u64(a.nval()); };
    else return 2;
    }
  vector<double> t;
  for (int r=0;r<reps;++r)
    {
    auto s=chrono::steady_clock::now(); check=job();
    t.push_back(chrono::duration<double>(chrono::steady_clock::now()-s).count());
    }
  double first=t[0]; sort(t.begin(),t.end());
  printf("%s %.6f %.6f %.6f %llu\n",op.c_str(),t[t.size()/2],first,t[0],check);
  }
