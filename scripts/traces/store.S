{module, store}.  %% version = 0

{exports, [{get,2},
           {loop,1},
           {module_info,0},
           {module_info,1},
           {new,0},
           {put,3},
           {stop,1}]}.

{attributes, []}.

{labels, 30}.


{function, new, 0, 2}.
  {label,1}.
    {line,[{location,"store.erl",5}]}.
    {func_info,{atom,store},{atom,new},0}.
  {label,2}.
    {move,{atom,loop},{x,1}}.
    {move,{literal,[[]]},{x,2}}.
    {move,{atom,store},{x,0}}.
    {call_ext_only,3,{extfunc,erlang,spawn_link,3}}.


{function, put, 3, 4}.
  {label,3}.
    {line,[{location,"store.erl",7}]}.
    {func_info,{atom,store},{atom,put},3}.
  {label,4}.
    {test_heap,4,3}.
    {put_tuple2,{x,1},{list,[{atom,put},{x,1},{x,2}]}}.
    {call_only,2,{f,10}}. % call/2


{function, get, 2, 6}.
  {label,5}.
    {line,[{location,"store.erl",9}]}.
    {func_info,{atom,store},{atom,get},2}.
  {label,6}.
    {test_heap,3,2}.
    {put_tuple2,{x,1},{list,[{atom,get},{x,1}]}}.
    {call_only,2,{f,10}}. % call/2


{function, stop, 1, 8}.
  {label,7}.
    {line,[{location,"store.erl",11}]}.
    {func_info,{atom,store},{atom,stop},1}.
  {label,8}.
    {move,{atom,stop},{x,1}}.
    {call_only,2,{f,10}}. % call/2


{function, call, 2, 10}.
  {label,9}.
    {line,[{location,"store.erl",13}]}.
    {func_info,{atom,store},{atom,call},2}.
  {label,10}.
    {'%',{var_info,{x,1},
                   [{type,{t_union,{t_atom,[stop]},
                                   none,none,
                                   [{{2,{t_atom,[get]}},
                                     {t_tuple,2,true,#{1 => {t_atom,[get]}}}},
                                    {{3,{t_atom,[put]}},
                                     {t_tuple,3,true,#{1 => {t_atom,[put]}}}}],
                                   none}}]}}.
    {allocate_heap,1,3,2}.
    {move,{x,0},{y,0}}.
    {bif,self,{f,0},[],{x,0}}.
    {put_tuple2,{x,1},{list,[{x,0},{x,1}]}}.
    {move,{y,0},{x,0}}.
    {line,[{location,"store.erl",14}]}.
    send.
  {label,11}.
    {loop_rec,{f,13},{x,0}}.
    {test,is_tuple,{f,12},[{x,0}]}.
    {test,test_arity,{f,12},[{x,0},2]}.
    {get_tuple_element,{x,0},0,{x,1}}.
    {test,is_eq_exact,{f,12},[{x,1},{y,0}]}.
    {get_tuple_element,{x,0},1,{x,0}}.
    remove_message.
    {deallocate,1}.
    return.
  {label,12}.
    {loop_rec_end,{f,11}}.
  {label,13}.
    {wait,{f,11}}.


{function, loop, 1, 15}.
  {label,14}.
    {line,[{location,"store.erl",17}]}.
    {func_info,{atom,store},{atom,loop},1}.
  {label,15}.
    {allocate,3,1}.
    {init_yregs,{list,[{y,0},{y,1}]}}.
    {move,{x,0},{y,2}}.
  {label,16}.
    {loop_rec,{f,21},{x,0}}.
    {test,is_tuple,{f,20},[{x,0}]}.
    {test,test_arity,{f,20},[{x,0},2]}.
    {get_tuple_element,{x,0},0,{x,1}}.
    {get_tuple_element,{x,0},1,{x,0}}.
    {test,is_tuple,{f,19},[{x,0}]}.
    {select_tuple_arity,{tr,{x,0},{t_tuple,0,false,#{}}},
                        {f,20},
                        {list,[2,{f,18},3,{f,17}]}}.
  {label,17}.
    {get_tuple_element,{x,0},0,{x,2}}.
    {test,is_eq_exact,{f,20},[{x,2},{atom,put}]}.
    {test_heap,3,2}.
    {move,{x,0},{y,1}}.
    {move,{x,1},{x,0}}.
    remove_message.
    {bif,self,{f,0},[],{x,1}}.
    {put_tuple2,{x,1},{list,[{x,1},{atom,ok}]}}.
    {line,[{location,"store.erl",19}]}.
    send.
    {test_heap,5,0}.
    {get_tuple_element,{y,1},1,{x,0}}.
    {get_tuple_element,{y,1},2,{x,1}}.
    {put_tuple2,{x,0},{list,[{x,0},{x,1}]}}.
    {put_list,{x,0},{y,2},{x,0}}.
    {call_last,1,{f,15},3}. % loop/1
  {label,18}.
    {get_tuple_element,{x,0},0,{x,2}}.
    {test,is_eq_exact,{f,20},[{x,2},{atom,get}]}.
    {move,{x,1},{y,1}}.
    remove_message.
    {bif,self,{f,0},[],{y,0}}.
    {get_tuple_element,{x,0},1,{x,0}}.
    {move,{y,2},{x,1}}.
    {line,[{location,"store.erl",20}]}.
    {call,2,{f,23}}. % found/2
    {test_heap,3,1}.
    {put_tuple2,{x,1},{list,[{y,0},{x,0}]}}.
    {move,{y,1},{x,0}}.
    {trim,2,1}.
    send.
    {move,{y,0},{x,0}}.
    {call_last,1,{f,15},1}. % loop/1
  {label,19}.
    {test,is_eq_exact,{f,20},[{x,0},{atom,stop}]}.
    {test_heap,3,2}.
    {move,{x,1},{x,0}}.
    remove_message.
    {bif,self,{f,0},[],{x,1}}.
    {put_tuple2,{x,1},{list,[{x,1},{atom,bye}]}}.
    {line,[{location,"store.erl",21}]}.
    send.
    {deallocate,3}.
    return.
  {label,20}.
    {loop_rec_end,{f,16}}.
  {label,21}.
    {wait,{f,16}}.


{function, found, 2, 23}.
  {label,22}.
    {line,[{location,"store.erl",24}]}.
    {func_info,{atom,store},{atom,found},2}.
  {label,23}.
    {test,is_nonempty_list,{f,25},[{x,1}]}.
    {get_list,{x,1},{x,2},{x,1}}.
    {test,is_tuple,{f,24},[{x,2}]}.
    {test,test_arity,{f,24},[{x,2},2]}.
    {get_tuple_element,{x,2},0,{x,3}}.
    {test,is_eq_exact,{f,24},[{x,3},{x,0}]}.
    {get_tuple_element,{x,2},1,{x,0}}.
    return.
  {label,24}.
    {call_only,2,{f,23}}. % found/2
  {label,25}.
    {test,is_nil,{f,22},[{x,1}]}.
    {move,{atom,none},{x,0}}.
    return.


{function, module_info, 0, 27}.
  {label,26}.
    {line,[]}.
    {func_info,{atom,store},{atom,module_info},0}.
  {label,27}.
    {move,{atom,store},{x,0}}.
    {call_ext_only,1,{extfunc,erlang,get_module_info,1}}.


{function, module_info, 1, 29}.
  {label,28}.
    {line,[]}.
    {func_info,{atom,store},{atom,module_info},1}.
  {label,29}.
    {move,{x,0},{x,1}}.
    {move,{atom,store},{x,0}}.
    {call_ext_only,2,{extfunc,erlang,get_module_info,2}}.
