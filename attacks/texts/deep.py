import os
import sys, random
sys.setrecursionlimit(1000000)
import threading
threading.stack_size(512*1024*1024)
sys.path.insert(0, os.path.dirname(os.path.realpath(__file__)))
from cedar_reader import *
from make_tables import signed
def nest(kind,k,r):
    if kind=='paren': return '('*k+'1'+')'*k
    if kind=='set': return '['*k+']'*k
    if kind=='rec': return '{a:'*k+'1'+'}'*k
    if kind=='call': return 'f('*k+')'*k
    if kind=='method': return 'context'+'.f()'*k
    if kind=='attr': return 'context'+'.a'*k
    if kind=='index': return 'context'+'["a"]'*k
    if kind=='sum': return '1'+' + 1'*k
    if kind=='rsum': return '(1 + '*k+'1'+')'*k
    if kind=='and': return 'true'+' && true'*k
    if kind=='or': return 'true || ('*k+'true'+')'*k
    if kind=='not': return '!('*k+'true'+')'*k
    if kind=='if': return 'if true then '*k+'1'+' else 2'*k
    if kind=='elif': return 'if true then 1 else '*k+'2'
    if kind=='iff': return 'if '*k+'true'+' then 1 else 2'*k
    if kind=='ne': return '('*k+'1'+' != 2)'*k
    if kind=='isin': return '('*k+'principal'+' is T in action)'*k
    if kind=='mix':
        s='principal'
        for _ in range(k):
            s=r.choice(['[%s]','{a: %s}','f(%s)','%s.a','(%s)','!(%s)','(%s) == 1','1 + (%s)','if (%s) then 1 else 2','(%s).f(1)','(%s) has a','[1,%s,{}]'])%s
            if r.random()<0.3: s='('+s+')'
        return s
def main():
    r=random.Random(1)
    lines=['ask tree']
    n=0
    for kind in 'paren set rec call method attr index sum rsum and or not if elif iff ne'.split():
        for k in (1,2,10,300,332,333,334,499,500,501,998,999,1000,1001,1500,4000):
            t=nest(kind,k,r)
            lines.append(f'{signed(t)} => {expression_answer(t,1000)}'); n+=1
            t=t[:-1]
            lines.append(f'{signed(t)} => {expression_answer(t,1000)}'); n+=1
    for _ in range(40):
        t=nest('mix',r.choice([10,100,500,900,1500]),r)
        lines.append(f'{signed(t)} => {expression_answer(t,1000)}'); n+=1
    open(sys.argv[1],'wb').write(('\n'.join(lines)+'\n').encode())
    print(n)
t=threading.Thread(target=main); t.start(); t.join()
