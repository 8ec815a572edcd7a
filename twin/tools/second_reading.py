"""A second reading of the rules in Python: loads (31 to 39), judgements and allowances of a stream of `images`,
compared with what `replay-workbench` answers.    python3 tools/second_reading.py STREAM"""
import os
import sys
S=1048576
def up(a,b): return -(-a//b)
def dens(l): return len(l)<=32 and sum(up(c*S,d) for c,d,t in l)<=S
def dem(l,n):
    if len(l)>32: return False
    u=[up(c*S,t) for c,d,t in l]
    if sum(u)>S: return False
    def f(x):
        s=0
        for (c,d,t),v in zip(l,u):
            if x<n*t+d: s+=0 if x<d else S*c*(1+(x-d)//t)
            else: s+=S*(n+1)*c+v*(x-n*t-d)
        return s
    return all(f(k*t+d)<=S*(k*t+d) for c,d,t in l for k in range(n+1))
def load(b,m,judge):
    if len(b)<4: return 31,0
    if b[0]!=1: return 32,0
    if b[1]!=m: return 33,0
    r=b[2]+256*b[3]
    if r>256 or len(b)!=4+2*m+18*r: return 34,0
    i=lambda a,n:int.from_bytes(b[a:a+n],'little')
    base=4+2*m
    rec=lambda k:base+18*(k-1)
    where={}
    chains=[]
    for p in range(m):
        k=i(4+2*p,2); n=0; ch=[]
        while k:
            if k>r or k in where: return 35,p+1
            n+=1
            if n>32: return 35,p+1
            where[k]=p+1; ch.append(k); k=i(rec(k),2)
        chains.append(ch)
    if len(where)<r: return 35,0
    R={}
    for k in range(1,r+1):
        a=rec(k); key=i(a+2,2); kind=b[a+4]; part=b[a+5]; c,d,t=i(a+6,4),i(a+10,4),i(a+14,4)
        ok=kind in(0,1,2) and key and 1<=c<=d<=t<=100000 and (kind!=2 or c==d) and (part==0 if kind!=2 else 1<=part<=7)
        if not ok: return 36,k
        R[k]=(key,kind,part,c,d,t)
    by={}
    for k,x in R.items(): by.setdefault(x[0],[]).append((where[k],)+x[1:])
    for key in sorted(by):
        rows=sorted(by[key],key=lambda x:(x[1],x[2]))
        kinds=[x[1] for x in rows]
        if kinds==[0]: continue
        if kinds!=[1]+[2]*(len(rows)-1) or len(rows)<2: return 37,key
        if [x[2] for x in rows[1:]]!=list(range(1,len(rows))): return 37,key
        if len({x[0] for x in rows})<len(rows) or len({x[5] for x in rows})>1: return 37,key
        if rows[0][4]+sum(x[3] for x in rows[1:])>rows[0][5]: return 37,key
    if len(by)>64: return 38,0
    for p,ch in enumerate(chains):
        if not judge([R[k][3:] for k in ch]): return 39,p+1
    # canonical bytes
    out=bytearray([1,m,r%256,r//256]); body=bytearray(); n=1
    for ch in chains:
        out+=(n if ch else 0).to_bytes(2,'little')
        for j,k in enumerate(ch):
            body+=(n+1 if j+1<len(ch) else 0).to_bytes(2,'little')+b[rec(k)+2:rec(k)+18]; n+=1
    return bytes(out+body).hex()

import subprocess
def allowance(l,kind,n,ref,T,cap):
    if cap==0 or not 1<=T<=100000 or len(l)>31: return 0
    de=min(cap,T) if not l else 0
    if kind==b'density': return de
    u=[up(c*S,t) for c,d,t in l]
    def f(x):
        s=0
        for (c,d,t),v in zip(l,u):
            if x<n*t+d: s+=0 if x<d else S*c*(1+(x-d)//t)
            else: s+=S*(n+1)*c+v*(x-n*t-d)
        return s
    z=lambda x:max(x,0)
    L=0
    for _ in range(ref+1):
        M=z((S-sum(u))*T)//S
        v=[M,cap]+([min(d for c,d,t in l)-1] if l else [])
        v+=[z(S*k*T-f(k*T+M))//(S*k) for k in range(1,n+1)]
        for c,d,t in l:
            for k in range(n+1):
                x=k*t+d; Q=S*x-f(x)
                if x>=n*T+L:
                    e=x-n*T-L; v.append(z(Q*T-(T-1)*e)//(S*((n+1)*T+e)))
                else: v.append(z(Q)//(S*(z(x-L)//T+1)))
        L=z(min(v))
    return max(L,de) if kind==b'either' else L
def main(inp):
    sessions=[x.rstrip(b'\n').split(b'\n') for x in open(inp,'rb').read().split(b'\n----\n')]
    mark=b'allow 77777 77777'
    stream=b'\n----\n'.join(b'\n'.join(l+b'\n'+mark for l in s) for s in sessions)+b'\n'
    out=subprocess.run([os.path.join(os.path.dirname(os.path.abspath(__file__)),'../target/release/replay-workbench')],input=stream,stdout=subprocess.PIPE).stdout.decode()
    out=out.split('----\n'); assert len(out)==len(sessions)+1
    n=j=al=bad=0
    for s,o in zip(sessions,out):
        if not o.startswith('board'): continue
        o=o.split('allowance 77777\n'); assert len(o)==len(s)+1,(len(o),len(s))
        f=s[0].split(); m,ns,ref=int(f[1]),int(f[2]),int(f[3])
        judge={b'density':dens,b'demand':lambda l:dem(l,ns),b'either':lambda l:dens(l) or dem(l,ns)}[f[4]]
        for l,r in zip(s,o):
            r=r.rstrip('\n'); w=l.split(b' ')
            if len(l)>12000: assert r=='refused 54 0',(r,len(l)); continue
            if w[0]==b'load' and len(w)==2:
                try: img=b'' if w[1]==b'-' else bytes.fromhex(w[1].decode())
                except Exception: assert r=='refused 52 0'; continue
                x=load(img,m,judge); n+=1
                want='loaded '+x if isinstance(x,str) else 'refused %d %d'%x
                if want!=r: bad+=1; print('DIFF',l[:80],want[:60],r[:60])
            elif w[0] in(b'judge',b'allow') and r and r.split()[0] in('yes','no','allowance'):
                v=list(map(int,b' '.join(w[1:]).split())); T=v[:2]
                if w[0]==b'allow': v=v[2:]
                v=[tuple(v[k:k+3]) for k in range(0,len(v),3)]
                assert all(1<=c<=d<=t<=100000 for c,d,t in v) and len(v)<=40
                want=('yes' if judge(v) else 'no') if w[0]==b'judge' else 'allowance %d'%allowance(v,f[4],ns,ref,*T)
                j+=w[0]==b'judge'; al+=w[0]==b'allow'
                if want!=r: bad+=1; print('DIFF',l,want,r)
    print(n,'loads',j,'judgements',al,'allowances',bad,'differences')
main(sys.argv[1])
