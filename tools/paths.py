#!/usr/bin/env python3
"""paths.py LTS.antt: the chain of places of a function: each record with its own fields and what its `before` is; and for each Need the record it is over."""
import re,sys
L=open(sys.argv[1]).read().split('\n')
prev={}
for i,l in enumerate(L):
    m=re.match(r'\s+pub before : (\S+)',l)
    if m:
        j=i
        while not re.match(r'\s+(?:pub )?record (\S+)',L[j]): j-=1
        name=re.match(r'\s+(?:pub )?record (\S+)',L[j]).group(1)
        f=[]; j=i+1
        while re.match(r'\s+pub (\S+) :',L[j]): f.append(re.match(r'\s+pub (\S+) :',L[j]).group(1)); j+=1
        prev[name]=(m.group(1),f)
def depth(n):
    d=0
    while n in prev: n=prev[n][0]; d+=1
    return d
for n,(b,f) in prev.items(): print(f'{depth(n):3d} {n}: own {", ".join(f)}; before {b}')
txt='\n'.join(L)
for m in re.finditer(r'pub (Need-\S+) : [^\n]*\n\s*\1 =[^(]*\(c : (\S+?)[)\s]',txt): print(m.group(1),'over',m.group(2),depth(m.group(2)))
