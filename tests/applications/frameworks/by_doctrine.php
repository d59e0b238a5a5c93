<?php
// Doctrine: its DBAL, or with a fifth word `orm` its mapper, with their defaults.
require 'Doctrine/ORM/autoload.php';
require __DIR__ . '/steps.php';

use Doctrine\DBAL\DriverManager;
use Doctrine\ORM\EntityManager;
use Doctrine\ORM\Mapping as ORM;
use Doctrine\ORM\ORMSetup;

[, $port, $user, $password, $database] = $argv;
$place = ['driver' => 'pdo_mysql', 'host' => '127.0.0.1', 'port' => (int) $port, 'user' => $user, 'password' => $password, 'dbname' => $database];

#[ORM\Entity, ORM\Table(name: 'note')]
class Note {
    #[ORM\Id, ORM\Column(type: 'bigint')] public $id;
    #[ORM\Column(type: 'string')] public $title;
    #[ORM\Column(type: 'string', nullable: true)] public $body;
    #[ORM\Column(type: 'bigint')] public $stars;
}

#[ORM\Entity, ORM\Table(name: 'tag')]
class Tag {
    #[ORM\Id, ORM\Column(type: 'bigint')] public $id;
    #[ORM\Column(type: 'string')] public $name;
    #[ORM\Column(type: 'bigint')] public $uses;
}

function by_dbal($base) {
    $read = fn($key) => array_values($base->fetchAssociative('SELECT title, body, stars FROM note WHERE id = ?', [$key]));
    $new = ['id' => 50, 'title' => 'Jam', 'body' => "it's \\ sweet", 'stars' => 3];
    $query = fn() => $base->createQueryBuilder();
    step('connect', fn() => $base->connect());
    step('read', fn() => $read(1));
    step('create', fn() => $base->insert('note', $new));
    step('created', fn() => $read(50));
    step('change', fn() => $base->update('note', ['stars' => 9], ['id' => 2]));
    step('delete', fn() => $base->delete('note', ['id' => 3]));
    step('page', fn() => $query()->select('g.name')->from('tag', 'g')->orderBy('g.name')->setFirstResult(1)->setMaxResults(2)->fetchFirstColumn());
    step('count', fn() => [$query()->select('COUNT(g.id)')->from('tag', 'g')->fetchOne()]);
    step('all', fn() => [$query()->select('COUNT(*)')->from('note')->where('stars >= 1')->fetchOne()]);
    step('roll back', function () use ($base, $read) {
        $base->beginTransaction();
        $base->update('note', ['stars' => 100], ['id' => 1]);
        $base->rollBack();
        return [$read(1)[2]];
    });
}

function by_orm($place) {
    $new = fn() => EntityManager::create($place, ORMSetup::createAttributeMetadataConfiguration([__DIR__], true, sys_get_temp_dir(), new Symfony\Component\Cache\Adapter\NullAdapter));
    $manager = $new();
    $read = function ($key) use ($new) {
        $note = $new()->find(Note::class, $key);
        return [$note->title, $note->body, $note->stars];
    };
    step('connect', fn() => $manager->getConnection()->connect());
    step('read', fn() => $read(1));
    step('create', function () use ($new) {
        $note = new Note;
        [$note->id, $note->title, $note->body, $note->stars] = [50, 'Jam', "it's \\ sweet", 3];
        $manager = $new();
        $manager->persist($note);
        $manager->flush();
    });
    step('created', fn() => $read(50));
    step('change', function () use ($new) {
        $manager = $new();
        $manager->find(Note::class, 2)->stars = 9;
        $manager->flush();
    });
    step('delete', function () use ($new) {
        $manager = $new();
        $manager->remove($manager->find(Note::class, 3));
        $manager->flush();
    });
    step('page', fn() => array_column($new()->createQuery('SELECT g.name FROM Tag g ORDER BY g.name')->setFirstResult(1)->setMaxResults(2)->getResult(), 'name'));
    step('count', fn() => [$new()->getRepository(Tag::class)->count([])]);
    step('all', fn() => [$new()->createQuery('SELECT COUNT(n) FROM Note n WHERE n.stars >= 1')->getSingleScalarResult()]);
    step('roll back', function () use ($new, $read) {
        $manager = $new();
        $manager->beginTransaction();
        $manager->find(Note::class, 1)->stars = 100;
        $manager->flush();
        $manager->rollback();
        return [$read(1)[2]];
    });
}

isset($argv[5]) ? by_orm($place) : by_dbal(DriverManager::getConnection($place));
