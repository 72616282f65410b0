let p = #{name: 1, age: 2, name: 3};
