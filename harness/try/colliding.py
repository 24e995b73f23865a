#!/usr/bin/env python3
"""colliding.py COUNT SEED OUT: packs of activations whose names are of the made kind, so that holders, samples and flags
meet old names. OUT has for each pack its length in 4 bytes and the pack, as `dump` reads it."""
import random, struct, sys
count,seed,out=int(sys.argv[1]),int(sys.argv[2]),sys.argv[3]
R=random.Random(seed)
def u16(n): return struct.pack('<H',n)
class B:
    def __init__(s): s.names=[]; s.ix={}
    def n(s,t):
        if t not in s.ix: s.ix[t]=len(s.names); s.names.append(t)
        return u16(s.ix[t])
def pool(acts,vs):
    p=list(vs)
    a=R.choice(acts)
    base=R.choice(vs)
    t=R.choice(['s1','s2','se'])
    made=[f'__act_{a}_{k}' for k in ('b1','b2','n1','n2','g2','g3','b1_b1')]
    made+=[f'__act_{a}_last_{v}' for v in vs]+[f'__act_{a}_{t}_{v}' for v in vs]+[f'__act_{a}_{x}_{v}' for v in vs for x in ('x1','x2','xe')]
    made+=[f'__act_{a}_{t}___act_{a}_{t}_{base}', f'__act_{a}_{t}___act_{a}_last_{base}', f'__act_{a}_last___act_{a}_last_{base}',f'__act_{a}_{t}___act_{a}_{t}___act_{a}_{t}_{base}']
    k=R.randint(0,6)
    p+=R.sample(made,min(k,len(made)))
    if R.random()<.3: p.append('x'*R.choice([200,240,250,255]))
    return p
def ty(b):
    r=R.random()
    if r<.1: return bytes([12])+struct.pack('<I',3)+bytes([R.choice([0,3,9])])
    if r<.3: return bytes([13])+b.n(R.choice(['E','F','G','v']))
    return bytes([R.randint(0,11)])
def expr(b,P,d,lastp):
    r=R.random()
    if d<=0 or r<.35:
        r=R.random()
        if r<lastp:
            return last(b,P,d,lastp)
        if r<.85: return bytes([1])+b.n(R.choice(P))
        k=R.randint(0,3)
        return bytes([0,k])+({0:bytes([R.randint(0,1)]),1:R.randbytes(8),2:R.randbytes(8),3:R.randbytes(1)}[k])
    e=lambda: expr(b,P,d-1,lastp)
    c=R.randint(0,13)
    if c==0: return bytes([2,R.randint(0,1)])+e()
    if c==1: return bytes([3,R.randint(0,19)])+e()+e()
    if c==2: return bytes([4])+e()+e()+e()
    if c==3: return bytes([5])+e()
    if c==4: return bytes([6])+e()+e()
    if c==5:
        n=R.randint(0,2); return bytes([7])+b.n(R.choice(['f','last','v'] if R.random()<.1 else ['f','v']))+u16(n)+b''.join(e() for _ in range(n))
    if c==6: return bytes([8])+e_field(b)+e()
    if c==7: return bytes([9])+e()+e()
    if c==8:
        n=R.randint(0,3); return bytes([R.choice([10,11])])+u16(n)+b''.join(e() for _ in range(n))
    if c==9:
        n=R.randint(0,2); return bytes([12])+b.n('G')+u16(n)+b''.join(b.n('f') for _ in range(n))+b''.join(e() for _ in range(n))
    if c==10: return bytes([13])+ty(b)+e()
    if c==11: return bytes([14])+b.n(R.choice(P))+bytes([R.randint(0,1)])+e()
    if c==12: return bytes([15])+b.n(R.choice(P))+e()+e()
    i=R.randint(0,1);n=R.randint(0,2)
    return bytes([16,R.randint(0,1)])+b.n('f')+bytes([i])+u16(n)+b''.join(e() for _ in range(i+n))
def e_field(b): return b.n('f')
def last(b,P,d,lastp):
    if R.random()<.01: return bytes([7])+b.n('last')+u16(3)+(bytes([1])+b.n(P[0]))*3
    if R.random()<.5: return bytes([7])+b.n('last')+u16(1)+bytes([1])+b.n(R.choice(P))
    return bytes([7])+b.n('last')+u16(2)+bytes([1])+b.n(R.choice(P))+expr(b,P,min(d-1,1),lastp)
def port(b,x): return b.n(x)+ty(b)
def lst(xs): return u16(len(xs))+b''.join(xs)
def eqn(b,P,ls,lp): return lst([b.n(x) for x in ls])+expr(b,P,R.randint(0,3),lp)
def pack():
    b=B()
    acts=R.sample(['a','a_b1','b','a_s1'],R.randint(1,3))
    vs=R.sample(['v','w','o','u','q_1'],R.randint(1,4))
    P=pool(acts,vs)
    if R.random()<.3:
        for x in R.sample(P,len(P)): b.n(x)
    if R.random()<.3: b.n('else')
    lp=R.choice([0,.2,.5])
    enums=lst([b.n(R.choice('EFEv'))+lst([b.n(R.choice(P+['A','B'])) for _ in range(R.randint(0,2))]) for _ in range(R.randint(0,3))])
    nds=[R.choice(['N','M','a']) for _ in range(R.randint(1,3))]
    def node(x):
        ks=[R.sample(P,R.randint(0,len(P))) for _ in range(3)]
        if R.random()<.7: ks[2]=list(set(ks[2])|set(vs))
        return b.n(x)+bytes([R.randint(0,2)])+b''.join(lst([port(b,v) for v in k]) for k in ks)+lst([eqn(b,P,R.sample(P,1),0) for _ in range(R.randint(0,2))])
    nodes=lst([node(x) for x in nds])
    machines=u16(0)
    def scope(os):
        es=[[o] for o in os]
        for _ in range(R.randint(0,2)): es.append(R.sample(P,R.randint(1,min(2,len(P)))))
        if R.random()<.02: es.append([])
        if R.random()<.02 and es: es.pop()
        R.shuffle(es)
        return lst([eqn(b,P,l,lp) for l in es])
    def act():
        os=R.sample(P,R.randint(1,min(2,len(P))))
        n=R.randint(1,3) if R.random()<.97 else 0
        bn=R.sample(['p','r','t','else','last','v'],n) if R.random()<.97 else ['p']*n
        o=R.choice(nds) if R.random()<.98 else 'zz'
        if R.random()<.02: os=[]
        ports=[port(b,x) for x in os]
        if R.random()<.1 and os: ports.append(port(b,os[0]))
        return b.n(R.choice(acts))+b.n(o)+lst(ports)+lst([b.n(x)+expr(b,P,R.randint(0,2),lp)+scope(os) for x in bn])+scope(os)
    activations=lst([act() for _ in range(R.randint(1,4))])
    origins=lst([b.n('N')+bytes([R.randint(0,1)])+b.n('a')+R.randbytes(4)+lst([b.n('v') for _ in range(R.randint(0,2))]) for _ in range(R.randint(0,1))])
    body=enums+nodes+machines+activations+origins
    return u16(len(b.names))+b''.join(bytes([len(x)])+x.encode() for x in b.names)+body
with open(out,'wb') as f:
    for _ in range(count):
        p=pack(); f.write(struct.pack('<I',len(p))+p)
